select sum(lo_extendedprice*lo_extendedprice) from lineorder
