select sum(lo_revenue) as r from lineorder;
