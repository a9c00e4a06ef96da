select lo_orderkey, sum(lo_revenue) as r from lineorder group by lo_orderkey;
