class LeftOut { float f; }
