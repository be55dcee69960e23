# Empty lines and comments are skipped, and every line counts. `queue` lines come first.
queue 3 0 0 0
iommu on
