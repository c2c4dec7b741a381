class A { # }
