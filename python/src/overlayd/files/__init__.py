"""Maps in files: read, rounded to whole numbers, and written, by GDAL and as text."""
