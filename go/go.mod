module curlpool

go 1.19
