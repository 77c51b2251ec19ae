// The judgements of strict.html, whose policy allows no script in the page.
'use strict';
const refused = [];
addEventListener('securitypolicyviolation', event => refused.push(event.violatedDirective));

function judgePolicy() {
    is('the style sheet is loaded', style(one('error', 'mtext')).color, 'rgb(176, 0, 32)');
    is('nothing asks for what the policy refuses', refused.join(), '');
}
judge(judgeMended, judgePolicy);
