select sum(lo_extendedprice*lo_discount) as r, count(*) as n from lineorder where (lo_discount = 3 or lo_quantity < 5);
