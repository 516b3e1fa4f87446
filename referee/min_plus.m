% usage: octave-cli -qfH min_plus.m [--last-totals] [--times N] STREAM
%
% Prints what min_plus.py prints, worked in GNU Octave in the same two ways; places begin at 1, so
% that slot 0 and window 0 stand first. With --times N the totals are worked N times over, and the
% processor's seconds of each time stand in a line before the table.
1;

function f = closure(table, last)
  f = zeros(1, last + 1);
  for n = 1:last
    k = min(n, numel(table) - 1);
    f(n + 1) = min(table(2:k + 1) + f(n:-1:n - k + 1));
  end
end

function least = convolution(totals, f)
  least = totals;
  for k = 1:numel(totals) - 1
    least(k + 1:end) = min(least(k + 1:end), totals(1:end - k) + f(k + 1));
  end
end

% f(d+1) to f(d+last), Inf for no limit, and f up to window last or beyond.
function [late, f] = due(table, d, last)
  if isinf(d)
    f = closure(table, last);
    late = Inf(1, last);
  else
    f = closure(table, d + last);
    late = f(d + 2:d + last + 1);
  end
end

function [X, Y] = by_theorem(table, d, q, arrivals)
  T = numel(arrivals);
  [late, f] = due(table, d, T);
  g = min(late, f(1:T) + q);
  X = zeros(1, T + 1);
  for t = 1:T
    X(t + 1) = min(X(t) + arrivals(t), min(X(1:t) + g(t:-1:1)));
  end
  Y = convolution(X, f);
end

function [X, Y] = by_last_totals(table, d, q, arrivals)
  L = numel(table) - 1;
  T = numel(arrivals);
  [late, f] = due(table, d, L);
  windows = [late; f(2:L + 1)](:, end:-1:1);
  X = zeros(1, T + 1);
  Y = [Inf(1, L), X];
  for t = 1:T
    least = min(windows + Y(t + 1:t + L), [], 2);
    X(t + 1) = min([X(t) + arrivals(t), least(1), Y(t + L) + q]);
    Y(t + L + 1) = min(X(t + 1), least(2));
  end
  Y = Y(L + 1:end);
end

function [table, d, q, arrivals] = read_stream(name)
  [file, problem] = fopen(name, "rb", "ieee-le");
  if file < 0
    fprintf(stderr, "min_plus: the file '%s': %s\n", name, problem);
    exit(1);
  end
  numbers = fread(file, Inf, "uint32")';
  fclose(file);
  [L, T, m, d, q] = num2cell(numbers(1:5)){:};
  d(d == 255) = Inf;
  q(q == 4294967295) = Inf;
  table = numbers(6:L + 6);
  arrivals = zeros(1, T);
  arrivals(numbers(L + 7:L + m + 6)) = numbers(L + m + 7:end);
end

function print_table(X, Y, arrivals)
  admitted = diff(X);
  dropped = arrivals - admitted;
  rows = [1:numel(arrivals); arrivals; admitted; dropped; diff(Y); (X - Y)(2:end)];
  puts("slot arrived admitted dropped departed held\n");
  if ! isempty(rows)
    printf("%d %d %d %d %d %d\n", rows);
  end
  printf("total %d %d %d %d %d\n", sum(arrivals), X(end), sum(dropped), Y(end), X(end) - Y(end));
end

words = argv();
work = @by_theorem;
times = 0;
if numel(words) > 0 && strcmp(words{1}, "--last-totals")
  work = @by_last_totals;
  words(1) = [];
end
if numel(words) > 1 && strcmp(words{1}, "--times")
  times = str2double(words{2});
  words(1:2) = [];
end
if numel(words) != 1
  fprintf(stderr, "usage: octave-cli -qfH min_plus.m [--last-totals] [--times N] STREAM\n");
  exit(2);
end
[table, d, q, arrivals] = read_stream(words{1});
seconds = zeros(1, times);
for n = 1:times
  start = cputime();
  work(table, d, q, arrivals);
  seconds(n) = cputime() - start;
end
if times > 0
  puts(["seconds" sprintf(" %.9f", seconds) "\n"]);
end
[X, Y] = work(table, d, q, arrivals);
print_table(X, Y, arrivals);
