select d_year, s_region, sum(lo_revenue) as r, count(*) as n from lineorder, date, supplier where lo_orderdate = d_datekey and lo_suppkey = s_suppkey and d_year >= 1993 group by d_year, s_region;
