"""What tools/fullerecru does, over the module of bindings/python."""
