#ifndef WORKED_H
#define WORKED_H

void worked_sheets();

#endif
