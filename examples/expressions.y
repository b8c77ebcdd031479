// Arithmetic, with its operators' levels as precedences.

%token NUMBER NAME

%left '+' '-'
%left '*' '/'
%right '^'

%start Expression

%%

Expression: Expression '+' Expression
          | Expression '-' Expression
          | Expression '*' Expression
          | Expression '/' Expression
          | Expression '^' Expression
          | '(' Expression ')'
          | NAME '(' Arguments ')'
          | NUMBER
          | NAME
          ;

Arguments:
         | List
         ;

List: Expression
    | List ',' Expression
    ;
