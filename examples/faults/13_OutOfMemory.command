(ulimit -v 40000; yes 'E 00' | head -c 60000000 | ./tlexplain)
