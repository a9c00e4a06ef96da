select lo_discount, sum(lo_revenue-lo_supplycost) as r, min(lo_quantity) as m, count(*) as n from lineorder group by lo_discount;
