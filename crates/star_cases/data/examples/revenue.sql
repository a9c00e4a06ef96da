select d_year, sum(lo_revenue) as revenue, count(*) as n
from lineorder, date where lo_orderdate = d_datekey
group by cube(d_year) order by revenue desc
