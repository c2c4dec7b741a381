class class { native }
