./tlexplain < examples
