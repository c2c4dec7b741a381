class Declared extends None { }
