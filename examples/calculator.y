// Arithmetic with a minus in front. That minus goes before `*` and `/` and behind `^`: `- a * b` is `(- a) * b`, and
// `- a ^ b` is `- (a ^ b)`. The token `-` alone would give it the level of a difference. So it takes the level of NEGATION,
// a token that stands in no text.

%token NUMBER

%left '+' '-'
%left '*' '/'
%nonassoc NEGATION
%right '^'

%start Expression

%%

Expression: Expression '+' Expression
          | Expression '-' Expression
          | Expression '*' Expression
          | Expression '/' Expression
          | '-' Expression %prec NEGATION
          | Expression '^' Expression
          | '(' Expression ')'
          | NUMBER
          ;
