/* MPS2 with the Cortex-M4 image AN386: code at 0, 4 MB of SRAM for data, heap and stack, 16 MB of PSRAM for the programs' buffers. */
MEMORY {
  code (rx) : ORIGIN = 0, LENGTH = 4M
  sram (rwx) : ORIGIN = 0x20000000, LENGTH = 4M
  psram (rwx) : ORIGIN = 0x21000000, LENGTH = 16M
}
SECTIONS {
  .vectors : { KEEP(*(.vectors)) } > code
  .text : { *(.text*) *(.rodata*) KEEP(*(.init)) KEEP(*(.fini)) } > code
  .init_array : {
    __preinit_array_start = .; KEEP(*(.preinit_array*)) __preinit_array_end = .;
    __init_array_start = .; KEEP(*(.init_array*)) __init_array_end = .;
    __fini_array_start = .; KEEP(*(.fini_array*)) __fini_array_end = .;
  } > code
  .ARM.exidx : { __exidx_start = .; *(.ARM.exidx* .ARM.extab*) __exidx_end = .; } > code
  .data : { *(.data*) } > sram
  end = .;
  __end__ = .;
  __stack = 0x20400000;
  .bss (NOLOAD) : { __bss_start__ = .; *(.bss*) *(COMMON) __bss_end__ = .; } > psram
}
