class Letters { int # }
