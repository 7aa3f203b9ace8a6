nop
/* x
*/
