select lo_custkey, d_year, sum(lo_revenue) as r from lineorder, date where lo_orderdate = d_datekey group by lo_custkey, d_year;
