// lwIP's own files: none. main.c has those of the site's image.
#define FS_ROOT ((struct fsdata_file *)NULL)
#define FS_NUMFILES 0
