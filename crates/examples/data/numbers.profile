# Numbers alone. No function of the host is needed, and none is registered.
mask 00000001
