import exifnorm

first = b"\034\002\170\000\004Vase"
second = b"\034\002\170\200\004\000\000\000\004Vase"
print("same" if exifnorm.same(first, second) else "different")
