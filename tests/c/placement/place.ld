/* Puts the two calls that feed PLACE bytes past the start of a page, before the
 * program's other sections are given their places. */
SECTIONS
{
    .text.placed :
    {
        . = ALIGN(4096) + PLACE;
        *(.text.ows_feed)
        . = ALIGN(4096) + PLACE;
        *(.text.ows_feed_frames)
    }
}
INSERT AFTER .text;
