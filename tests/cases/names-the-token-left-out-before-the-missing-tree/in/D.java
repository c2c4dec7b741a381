} class A { assert }
