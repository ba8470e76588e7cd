/* The latest version of a paper: the model reads none above it, `papers` draws
 * none above it, and the listed papers have none above it. */
#ifndef MODEL_LATEST_H
#define MODEL_LATEST_H

#ifndef LATEST
#define LATEST 7
#endif

#endif
