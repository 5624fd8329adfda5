/* The three standard descriptors. */
#ifndef DESCRIPTORS_H
#define DESCRIPTORS_H

/* Opens each of them that is closed on the null device, so that no file that is opened later becomes one of
   them and takes what is printed. What is printed there fails, and that is told by the exit status. */
void open_standard_descriptors(void);

#endif
