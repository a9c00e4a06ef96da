select d_year, sum(lo_revenue) as r from lineorder, date where lo_orderdate = d_datekey group by d_year;
