NAME=ST B-L475E-IOT01A: STM32L475, Cortex-M4 of 16 MHz here
CORE=cortex-m4
FLASH_AT=0x08000000
FLASH_LEN=1024K
RAM_AT=0x20000000
RAM_LEN=96K
RING=8192
PROCESSOR=arm
MACHINE=b-l475e-iot01a
MACHINE_MORE=-chardev file,id=z,path=/dev/null,input-path=/dev/zero -mon chardev=z
