// A part of SQL over tokens: SELECT, INSERT, UPDATE, DELETE and CREATE TABLE.

%token NAME STRING_LITERAL INTEGER_LITERAL DECIMAL_LITERAL PARAMETER
%token ACTION ALL AND ANY AS ASC BETWEEN BIGINT BOOLEAN BY CASCADE CASE CAST CHAR CHECK CONSTRAINT CREATE CROSS DATE DECIMAL
%token DEFAULT DELETE DESC DISTINCT DOUBLE ELSE END ESCAPE EXCEPT EXISTS FALSE FIRST FOREIGN FROM FULL GROUP HAVING IF IN
%token INNER INSERT INT INTEGER INTERSECT INTO IS JOIN KEY LAST LEFT LIKE LIMIT NATURAL NO NOT NULL NULLS NUMERIC OFFSET ON
%token OR ORDER OUTER PRECISION PRIMARY REAL REFERENCES RESTRICT RETURNING RIGHT SELECT SET SMALLINT SOME TABLE TEXT THEN
%token TIME TIMESTAMP TRUE UNION UNIQUE UNKNOWN UPDATE USING VALUES VARCHAR WHEN WHERE WITH

/* Operators, the loosest first. Comparisons stand as a layer of rules between IS and `||`. */
%left OR
%left AND
%right NOT
%nonassoc IS
%left "||"
%left '+' '-'
%left '*' '/' '%'

%start Statements

%%

Statements: Statement
          | Statements ';' Statement
          ;

Statement:
         | Select
         | Insert
         | Update
         | Delete
         | CreateTable
         ;

/* Queries */

Select: Query OrderBy Limit
      | WITH CommonTables Query OrderBy Limit
      ;

CommonTables: CommonTable
            | CommonTables ',' CommonTable
            ;

CommonTable: NAME ColumnNames AS '(' Select ')'
           ;

ColumnNames:
           | '(' Names ')'
           ;

Names: NAME
     | Names ',' NAME
     ;

Query: QueryTerm
     | Query UNION QueryTerm
     | Query UNION ALL QueryTerm
     | Query EXCEPT QueryTerm
     | Query EXCEPT ALL QueryTerm
     ;

QueryTerm: QueryPrimary
         | QueryTerm INTERSECT QueryPrimary
         | QueryTerm INTERSECT ALL QueryPrimary
         ;

QueryPrimary: SELECT Quantifier Results From Where GroupBy Having
            | ValuesClause
            ;

ValuesClause: VALUES Rows
            ;

Rows: Row
    | Rows ',' Row
    ;

Row: '(' Expressions ')'
   ;

Quantifier:
          | ALL
          | DISTINCT
          ;

Results: Result
       | Results ',' Result
       ;

Result: '*'
      | NAME '.' '*'
      | Expression
      | Expression NAME
      | Expression AS NAME
      ;

From:
    | FROM Tables
    ;

Tables: Joined
      | Tables ',' Joined
      ;

Joined: Table
      | Joined CROSS JOIN Table
      | Joined NATURAL JoinKind JOIN Table
      | Joined JoinKind JOIN Table ON Expression
      | Joined JoinKind JOIN Table USING '(' Names ')'
      ;

JoinKind:
        | INNER
        | LEFT Outer
        | RIGHT Outer
        | FULL Outer
        ;

Outer:
     | OUTER
     ;

Table: QualifiedName Alias
     | '(' Select ')' NAME ColumnNames
     | '(' Select ')' AS NAME ColumnNames
     ;

Alias:
     | NAME
     | AS NAME
     ;

QualifiedName: NAME
             | NAME '.' NAME
             ;

Where:
     | WHERE Expression
     ;

GroupBy:
       | GROUP BY Expressions
       ;

Having:
      | HAVING Expression
      ;

OrderBy:
       | ORDER BY Orders
       ;

Orders: Order
      | Orders ',' Order
      ;

Order: Expression Direction NullsOrder
     ;

Direction:
         | ASC
         | DESC
         ;

NullsOrder:
          | NULLS FIRST
          | NULLS LAST
          ;

Limit:
     | LIMIT Expression
     | LIMIT Expression OFFSET Expression
     | OFFSET Expression
     ;

/* Changes */

Insert: INSERT INTO QualifiedName ColumnNames Select Returning
      | INSERT INTO QualifiedName DEFAULT VALUES Returning
      ;

Update: UPDATE QualifiedName Alias SET Assignments From Where Returning
      ;

Assignments: Assignment
           | Assignments ',' Assignment
           ;

Assignment: NAME '=' Expression
          | NAME '=' DEFAULT
          ;

Delete: DELETE FROM QualifiedName Alias Where Returning
      ;

Returning:
         | RETURNING Results
         ;

/* Tables */

CreateTable: CREATE TABLE IfNotExists QualifiedName '(' TableElements ')'
           ;

IfNotExists:
           | IF NOT EXISTS
           ;

TableElements: TableElement
             | TableElements ',' TableElement
             ;

TableElement: NAME Type ColumnConstraints
            | TableConstraint
            | CONSTRAINT NAME TableConstraint
            ;

Type: SMALLINT
    | INT
    | INTEGER
    | BIGINT
    | REAL
    | DOUBLE PRECISION
    | ExactNumber
    | ExactNumber '(' INTEGER_LITERAL ')'
    | ExactNumber '(' INTEGER_LITERAL ',' INTEGER_LITERAL ')'
    | CHAR '(' INTEGER_LITERAL ')'
    | VARCHAR '(' INTEGER_LITERAL ')'
    | TEXT
    | BOOLEAN
    | DATE
    | TIME
    | TIMESTAMP
    ;

ExactNumber: DECIMAL
           | NUMERIC
           ;

ColumnConstraints:
                 | ColumnConstraints ColumnConstraint
                 | ColumnConstraints CONSTRAINT NAME ColumnConstraint
                 ;

ColumnConstraint: NULL
                | NOT NULL
                | UNIQUE
                | PRIMARY KEY
                | DEFAULT Primary
                | CHECK '(' Expression ')'
                | Reference
                ;

TableConstraint: UNIQUE '(' Names ')'
               | PRIMARY KEY '(' Names ')'
               | CHECK '(' Expression ')'
               | FOREIGN KEY '(' Names ')' Reference
               ;

Reference: REFERENCES QualifiedName ColumnNames Actions
         ;

Actions:
       | Actions ON DELETE Action
       | Actions ON UPDATE Action
       ;

Action: NO ACTION
      | RESTRICT
      | CASCADE
      | SET NULL
      | SET DEFAULT
      ;

/* Expressions */

Expressions: Expression
           | Expressions ',' Expression
           ;

Expression: Predicate
          | Expression OR Expression
          | Expression AND Expression
          | NOT Expression
          | Expression IS Truth
          | Expression IS NOT Truth
          ;

Truth: NULL
     | TRUE
     | FALSE
     | UNKNOWN
     ;

Predicate: Value
         | Value Comparison Value
         | Value Comparison Some '(' Select ')'
         | Value Not BETWEEN Value AND Value
         | Value Not IN '(' Select ')'
         | Value Not IN '(' Expressions ')'
         | Value Not LIKE Value
         | Value Not LIKE Value ESCAPE Value
         ;

Not:
   | NOT
   ;

Comparison: '='
          | "<>"
          | '<'
          | '>'
          | "<="
          | ">="
          ;

Some: ALL
    | ANY
    | SOME
    ;

Value: Primary
     | Value "||" Value
     | Value '+' Value
     | Value '-' Value
     | Value '*' Value
     | Value '/' Value
     | Value '%' Value
     ;

Primary: Literal
       | PARAMETER
       | QualifiedName
       | '-' Primary
       | '+' Primary
       | '(' Expression ')'
       | '(' Select ')'
       | EXISTS '(' Select ')'
       | NAME '(' ')'
       | NAME '(' '*' ')'
       | NAME '(' Quantifier Expressions ')'
       | CAST '(' Expression AS Type ')'
       | CASE Whens ElseClause END
       | CASE Expression Whens ElseClause END
       ;

Literal: INTEGER_LITERAL
       | DECIMAL_LITERAL
       | STRING_LITERAL
       | TRUE
       | FALSE
       | NULL
       ;

Whens: When
     | Whens When
     ;

When: WHEN Expression THEN Expression
    ;

ElseClause:
          | ELSE Expression
          ;
