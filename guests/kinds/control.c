/* A control loop in floats: a motor's model, an observer of its speed, a PID controller with a limit, and a profile of set points. */
#include <math.h>
#include <stdio.h>

enum { STEPS = 200 };

typedef struct {
    float gain, integral, derivative, sum, last, limit;
} Pid;

typedef struct {
    float current, speed, angle;
} Motor;

static float clamped(float value, float limit)
{
    return value > limit ? limit : value < -limit ? -limit : value;
}

static float pid_step(Pid *pid, float error, float seconds)
{
    float change = (error - pid->last) / seconds;
    float wanted = pid->gain * error + pid->integral * (pid->sum + error * seconds) + pid->derivative * change;
    float given = clamped(wanted, pid->limit);
    if (given == wanted)
        pid->sum += error * seconds; /* no windup at the limit */
    pid->last = error;
    return given;
}

static void motor_step(Motor *motor, float volts, float load, float seconds)
{
    const float resistance = 1.2f, inductance = 0.01f, torque = 0.05f, inertia = 0.0004f, friction = 0.0002f;
    motor->current += (volts - resistance * motor->current - torque * motor->speed) / inductance * seconds;
    motor->speed += (torque * motor->current - friction * motor->speed - load) / inertia * seconds;
    motor->angle = fmodf(motor->angle + motor->speed * seconds, 6.2831853f);
}

static float observed(float *estimate, float angle, float last, float seconds)
{
    float moved = angle - last;
    if (moved > 3.1415927f)
        moved -= 6.2831853f;
    if (moved < -3.1415927f)
        moved += 6.2831853f;
    *estimate += 0.2f * (moved / seconds - *estimate);
    return *estimate;
}

static float set_point(int step)
{
    float at = (float)step / STEPS;
    return at < 0.2f ? 500 * at : at < 0.6f ? 100 + 20 * sinf(40 * at) : at < 0.8f ? -60 : 30 * sqrtf(at);
}

int main(void)
{
    Pid pid = {0.4f, 3.0f, 0.0005f, 0, 0, 24};
    Motor motor = {0, 0, 0};
    float estimate = 0, last = 0, worst = 0;
    double squares = 0;
    for (int step = 0; step < STEPS; step++) {
        float wanted = set_point(step), load = step > STEPS / 2 ? 0.02f : 0.005f;
        float speed = observed(&estimate, motor.angle, last, 0.002f);
        last = motor.angle;
        float volts = pid_step(&pid, wanted - speed, 0.002f);
        for (int part = 0; part < 4; part++)
            motor_step(&motor, volts, load, 0.0005f);
        float error = fabsf(wanted - motor.speed);
        worst = error > worst ? error : worst;
        squares += (double)error * error;
        if (step % 40 == 39)
            printf("%4d: wanted %8.3f, speed %8.3f, %7.3f V, %6.3f A\n", step + 1, (double)wanted, (double)motor.speed, (double)volts, (double)motor.current);
    }
    printf("worst %.4f, root of the mean square %.4f\n", (double)worst, sqrt(squares / STEPS));
    return 0;
}
