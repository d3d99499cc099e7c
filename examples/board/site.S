// The site's image, as it stands in flash.
    .section .rodata.site, "a"
    .global site_image, site_image_end
    .balign 8
site_image:
    .incbin SITE
site_image_end:
    .section .note.GNU-stack, "", %progbits    // no executable stack
