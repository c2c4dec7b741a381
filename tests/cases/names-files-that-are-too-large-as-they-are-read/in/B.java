class B { # }
