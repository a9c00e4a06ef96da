select count(*) from lineorder;
explain select sum(lo_revenue) from lineorder;
select d_year, count(*) as n from lineorder, date
where lo_orderdate = d_datekey group by d_year;
