select d_year, sum(lo_reveneu) as revenue
from lineorder, date where lo_orderdate = d_datekey
group by d_year
