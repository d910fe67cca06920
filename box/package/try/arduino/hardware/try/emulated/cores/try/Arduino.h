// The part of Arduino's core that a sketch over this library needs.
#pragma once
void setup();
void loop();
