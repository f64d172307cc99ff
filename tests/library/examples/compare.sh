printf '\034\002\170\000\004Vase' > first                          # a caption
printf '\034\002\170\200\004\000\000\000\004Vase' > second         # the same in another encoding
exifnorm compare first second                                      # same
