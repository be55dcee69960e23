# Mappings whose ends fit 64 bits, and mappings whose ends do not.
queue 4 0 0x100 0x200
iommu on
iommu on
iommu off
iommu off
harvest
