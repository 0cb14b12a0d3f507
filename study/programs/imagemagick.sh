# Reads an image of 320 x 240 points, turns it, makes it smaller, sharpens it and writes it as PNG.
# Debian: imagemagick
perl -e 'srand 1; print "P6 320 240 255\n"; for my $y (0 .. 239) { print pack "C3", $_ * 3 / 4, $y, 100 + rand 50 for 0 .. 319 }' > photo.ppm
traced convert photo.ppm -rotate 90 -resize 50% -sharpen 0x1 -strip photo.png
