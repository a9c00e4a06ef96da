select d_year, d_month, d_dayofweek, sum(lo_revenue) as r from lineorder, date where lo_orderdate = d_datekey group by d_year, d_month, d_dayofweek;
