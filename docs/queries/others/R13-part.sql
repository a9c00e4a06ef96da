select lo_partkey, sum(lo_revenue) as r from lineorder group by lo_partkey;
