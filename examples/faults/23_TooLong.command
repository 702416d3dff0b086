yes 'E 00' | head -c 67108865 | ./tlexplain
