/* Mcal_Link.h: where mcal.c says its lines and hears the answers, with the program (pipe.c) or the library (library.c). */
#ifndef MCAL_LINK_H
#define MCAL_LINK_H

#include "Std_Types.h"

/* Switches the power on under a configuration. What is told then ends with a state line, or is the configuration's fault. */
void Mcal_LinkOn(const char *configuration);
void Mcal_LinkOff(void);
boolean Mcal_LinkIsOn(void);
/* Says a line. */
void Mcal_Say(const char *line);
/* The next line that is told, without its end, till the next call; NULL where there is none more. */
char *Mcal_Hear(void);

#endif
