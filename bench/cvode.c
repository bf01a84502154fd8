/* The same problems by CVODE (BDF, Newton, a dense matrix, the same Jacobians): its time beside ours. Input as problems.in has it,
   words of 8 bytes; prints the nanoseconds, the steps of one run, and its last state. */
#include <cvode/cvode.h>
#include <nvector/nvector_serial.h>
#include <stdint.h>
#include <stdio.h>
#include <string.h>
#include <sunlinsol/sunlinsol_dense.h>
#include <sunmatrix/sunmatrix_dense.h>
#include <time.h>

static uint64_t kind;
static int n;
static double p, a[1024], y0[32], set[4];

static double diode(double v) { return v * (27.0 + v * v) / (27.0 + 9.0 * v * v); }

static double slope(double v) {
  double below = 27.0 + 9.0 * v * v;
  return ((27.0 + 3.0 * v * v) * below - v * (27.0 + v * v) * (18.0 * v)) / (below * below);
}

static double wave(double x) {
  double periods = 110.0 * x;
  volatile double whole = periods + 6755399441055744.0;
  double r = periods - (whole - 6755399441055744.0);
  return 20.78 * r * (0.25 - r * r);
}

static int derivative(double x, N_Vector state, N_Vector rate, void *u) {
  double *y = N_VGetArrayPointer(state), *f = N_VGetArrayPointer(rate);
  if (kind == 0) {
    for (int r = 0; r < n; r++) {
      double sum = 0.0;
      for (int c = 0; c < n; c++) sum += a[r * n + c] * y[c];
      f[r] = sum;
    }
  } else if (kind == 1) {
    f[0] = y[1];
    f[1] = p * (1.0 - y[0] * y[0]) * y[1] - y[0];
  } else {
    double s = diode(5.0 * wave(x) - 4.0 * y[3] - y[0]), b = diode(y[0] - y[1]), c = diode(y[1] - y[2]), d = diode(y[2] - y[3]);
    f[0] = p * (s - b);
    f[1] = p * (b - c);
    f[2] = p * (c - d);
    f[3] = p * (d - diode(y[3]));
  }
  return 0;
}

static int jacobian(double x, N_Vector state, N_Vector rate, SUNMatrix j, void *u, N_Vector t1, N_Vector t2, N_Vector t3) {
  double *y = N_VGetArrayPointer(state), m[1024];
  if (kind == 0) {
    memcpy(m, a, sizeof m);
  } else if (kind == 1) {
    m[0] = 0.0;
    m[1] = 1.0;
    m[2] = -2.0 * p * y[0] * y[1] - 1.0;
    m[3] = p * (1.0 - y[0] * y[0]);
  } else {
    double s = slope(5.0 * wave(x) - 4.0 * y[3] - y[0]), b = slope(y[0] - y[1]), c = slope(y[1] - y[2]), d = slope(y[2] - y[3]);
    double rows[16] = {-s - b, b, 0, -4.0 * s, b, -b - c, c, 0, 0, c, -c - d, d, 0, 0, d, -d - slope(y[3])};
    for (int i = 0; i < 16; i++) m[i] = p * rows[i];
  }
  for (int r = 0; r < n; r++)
    for (int c = 0; c < n; c++) SM_ELEMENT_D(j, r, c) = m[r * n + c];
  return 0;
}

static long solve(double *last) {
  SUNContext context;
  SUNContext_Create(NULL, &context);
  N_Vector y = N_VNew_Serial(n, context);
  memcpy(N_VGetArrayPointer(y), y0, n * sizeof(double));
  void *cv = CVodeCreate(CV_BDF, context);
  CVodeInit(cv, derivative, set[0], y);
  CVodeSStolerances(cv, set[2], set[3]);
  SUNMatrix m = SUNDenseMatrix(n, n, context);
  SUNLinearSolver ls = SUNLinSol_Dense(y, m, context);
  CVodeSetLinearSolver(cv, ls, m);
  CVodeSetJacFn(cv, jacobian);
  CVodeSetMaxNumSteps(cv, 1000000);
  CVodeSetStopTime(cv, set[1]);
  double x;
  CVode(cv, set[1], y, &x, CV_NORMAL);
  long steps;
  CVodeGetNumSteps(cv, &steps);
  memcpy(last, N_VGetArrayPointer(y), n * sizeof(double));
  SUNLinSolFree(ls);
  SUNMatDestroy(m);
  CVodeFree(&cv);
  N_VDestroy(y);
  SUNContext_Free(&context);
  return steps;
}

static uint64_t word(void) {
  uint64_t v = 0;
  for (int i = 0; i < 8; i++) v = v * 256 + (uint64_t)getchar();
  return v;
}

static double number(void) {
  uint64_t v = word();
  double x;
  memcpy(&x, &v, 8);
  return x;
}

int main(void) {
  uint64_t times = word();
  kind = word();
  n = (int)word();
  for (int i = 0; i < 4; i++) set[i] = number();
  p = number();
  for (int i = 0; i < n; i++) y0[i] = number();
  if (kind == 0)
    for (int i = 0; i < n * n; i++) a[i] = number();
  double last[32];
  long steps = 0;
  struct timespec s, e;
  clock_gettime(CLOCK_PROCESS_CPUTIME_ID, &s);
  for (uint64_t t = 0; t < times; t++) steps = solve(last);
  clock_gettime(CLOCK_PROCESS_CPUTIME_ID, &e);
  printf("%lld %ld", (e.tv_sec - s.tv_sec) * 1000000000LL + (e.tv_nsec - s.tv_nsec), steps);
  for (int i = 0; i < n; i++) printf(" %.17g", last[i]);
  printf("\n");
  return 0;
}
