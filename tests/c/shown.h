/* What is printed of a call: the refusal or what was handed over, and the state. */
#ifndef SHOWN_H
#define SHOWN_H

void show_dock(unsigned refusal);
void show_laptop(unsigned refusal);
void show_catalogue(unsigned refusal);
void show_reading(unsigned result);
void show_stretch(unsigned result);
void show_mending(unsigned result);
void show_fresh_dock(unsigned refusal);
void show_fresh_laptop(unsigned refusal);
void show_report(unsigned entered);
void show_set(unsigned refusal);

#endif
