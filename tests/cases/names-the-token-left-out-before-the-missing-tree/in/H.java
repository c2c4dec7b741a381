} byte
