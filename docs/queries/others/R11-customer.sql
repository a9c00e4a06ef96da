select lo_custkey, sum(lo_revenue) as r from lineorder group by lo_custkey;
