/*
 * Each function of the library starts at a cache line of 64 bytes, as the host's do (.cargo/config.toml): its speed here is not to depend
 * on where the code before it ends.
 */
SECTIONS
{
  .text.library : SUBALIGN(64) { *mound_c.o(.text .text.*) }
}
INSERT BEFORE .text;
