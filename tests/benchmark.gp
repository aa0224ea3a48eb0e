\\ Nanoseconds for the same in PARI/GP: the form's value by components, and the expressions expanded as polynomials in components.
dot(a, b) = a[1] * b[1] + a[2] * b[2] + a[3] * b[3];
wedge(a, b) = [a[2] * b[3] - a[3] * b[2], a[3] * b[1] - a[1] * b[3], a[1] * b[2] - a[2] * b[1]];
measure(f, count) = { my(since = getwalltime()); for(i = 1, count, f()); printf("%10.0f\n", (getwalltime() - since) * 1e6 / count) };

\\ numbers for the letters a to n
number(i, k) = (5 * i + 3 * k) % 13 - 6;
letter = vector(12, i, vector(3, k, number(i - 1, k - 1)));
m = number(12, 0); n = number(13, 0);
value() = sum(v = 3, 10, sum(i = 1, 6, -35 * m * n * dot(letter[1], letter[i]) * dot(wedge(letter[4], letter[5]), letter[6]) * letter[v]));
measure(value, 10000);

\\ a variable for each component
x = vector(12, i, vector(3, k, eval(Str("v", i, "_", k))));
s = vector(6, i, eval(Str("s", i)));
measure(() -> wedge(x[1], wedge(x[2], x[3])), 100000);
measure(() -> vecsum(s) * sum(i = 1, 8, x[i]), 10000);
wedges_of(n) = sum(i = 1, n, wedge(x[2 * i - 1], x[2 * i]));
measure(() -> wedge(wedges_of(4), wedges_of(6)), 100);

\\ the forms to decide, which tests/decision_cases.py --gp prints, compared as polynomials in components
triple(a, b, c) = dot(wedge(a, b), c);
read("target/forms.gp");
measure(rule_5, 1000);
measure(equal, 10);
measure(other, 10);
measure(zero, 10);
measure(vectors, 10);
measure(apart, 10);
measure(far, 10);
measure(wedges, 10000);
