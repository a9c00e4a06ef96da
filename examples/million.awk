# Writes a million order lines over the tables of examples/data: awk -f examples/million.awk > big/lineorder.tbl
BEGIN {
    split("19930210 19940105 19971215", day)
    for (i = 0; i < 1000000; i++)
        printf "%d|%d|%d|%d|%d|%d|2-HIGH|0|%d|%d|%d|%d|%d|600|%d|19971215|MAIL|\n", 1 + int(i / 4), 1 + i % 4,
            1 + i % 3, 1 + i % 5 % 3, 1 + i % 2, day[1 + i % 7 % 3], 1 + i % 50,
            1000 + i % 9001, 1000 + i % 9001, i % 11, 900 + i % 8001, i % 9
}
