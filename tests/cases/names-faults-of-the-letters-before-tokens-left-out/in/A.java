class A { float f; }
#
