select lo_orderkey, lo_linenumber, sum(lo_revenue) as r, count(*) as n from lineorder group by lo_orderkey, lo_linenumber;
