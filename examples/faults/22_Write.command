./tlexplain < examples/get.trace > /dev/full
